//! Threads move money between accounts of one store, and the sum stays: a caller of include/txkv.h.
use std::sync::{Arc, Mutex};
use std::thread;

mod raw {
    #[repr(C)]
    pub struct Lines {
        _hidden: [u8; 0],
    }

    unsafe extern "C" {
        pub fn txkv_lines_open(first: *const u8, length: usize, store: *mut *mut Lines) -> u32;
        pub fn txkv_lines_play(store: *mut Lines, line: *const u8, length: usize) -> bool;
        pub fn txkv_lines_reply(store: *mut Lines, reply: *mut u8, room: usize) -> u64;
        pub fn txkv_lines_close(store: *mut Lines);
    }
}

struct Held(*mut raw::Lines);

// SAFETY: the lock of `Store` gives the pointer to one call at a time.
unsafe impl Send for Held {}

/// A store that threads share: each line is one exchange.
pub struct Store(Mutex<Held>);

impl Store {
    /// Opens a store by its first line.
    pub fn open(first: &str) -> Option<Store> {
        let mut store = std::ptr::null_mut();
        // SAFETY: a slice of Rust's, and room for the pointer.
        let how = unsafe { raw::txkv_lines_open(first.as_ptr(), first.len(), &mut store) };
        (how == 1).then(|| Store(Mutex::new(Held(store))))
    }

    /// Plays a line: the reply to it, without its newline.
    pub fn ask(&self, line: &str) -> String {
        let store = self.0.lock().unwrap();
        let mut reply = vec![0; 256];
        // SAFETY: what `open` gave and `drop` has not taken, under the lock, and slices of Rust's.
        unsafe {
            assert!(raw::txkv_lines_play(store.0, line.as_ptr(), line.len()), "out of memory");
            loop {
                let told = raw::txkv_lines_reply(store.0, reply.as_mut_ptr(), reply.len()) as usize;
                assert!(told > 0, "out of memory");
                let fits = told <= reply.len();
                reply.resize(told, 0);
                if fits {
                    break;
                }
            }
        }
        reply.pop();
        String::from_utf8(reply).unwrap()
    }
}

impl Drop for Store {
    fn drop(&mut self) {
        // SAFETY: nobody else has it any more.
        unsafe { raw::txkv_lines_close(self.0.get_mut().unwrap().0) }
    }
}

/// What a reply tells behind the number of its line.
fn told(reply: &str) -> &str {
    assert!(!reply.contains("\"E16\""), "{reply}");
    reply.split_once(',').unwrap().1
}

fn balance(store: &Store, name: &str, account: u64) -> Option<i64> {
    let reply = store.ask(&format!(r#"["get","{name}","a{account:02}"]"#));
    Some(told(&reply).strip_prefix("\"value\",\"")?.strip_suffix("\"]")?.parse().unwrap())
}

/// Sends what is due of a kind until nothing is: whether that went well.
fn each(store: &Store, word: &str, name: &str) -> bool {
    loop {
        let reply = store.ask(&format!(r#"["{word}","{name}"]"#));
        match told(&reply) {
            "\"done\"]" => return true,
            said if said.starts_with("\"E") => return false,
            _ => {}
        }
    }
}

/// Commits what a transaction has entered: whether it has.
fn commit(store: &Store, name: &str) -> bool {
    store.ask(&format!(r#"["declare","{name}","async",1000]"#));
    if !(each(store, "prewrite", name) && each(store, "commit", name)) {
        each(store, "abort", name);
    }
    let reply = store.ask(&format!(r#"["finish","{name}"]"#));
    told(&reply).starts_with("\"outcome\",\"committed\"")
}

fn transfer(store: &Store, name: &str, from: u64, to: u64, amount: i64) -> bool {
    store.ask(&format!(r#"["begin","{name}"]"#));
    let (Some(x), Some(y)) = (balance(store, name, from), balance(store, name, to)) else {
        store.ask(&format!(r#"["stop","{name}"]"#));
        return false;
    };
    store.ask(&format!(r#"["put","{name}","a{from:02}","{}"]"#, x - amount));
    store.ask(&format!(r#"["put","{name}","a{to:02}","{}"]"#, y + amount));
    commit(store, name)
}

fn main() {
    let (threads, transfers, accounts) = (4, 500, 100);
    let store = Arc::new(Store::open(r#"["regions",["a50"]]"#).expect("a store"));
    store.ask(r#"["begin","fill"]"#);
    for account in 0..accounts {
        store.ask(&format!(r#"["put","fill","a{account:02}","1000"]"#));
    }
    assert!(commit(&store, "fill"));
    let all: Vec<_> = (0..threads)
        .map(|own: u64| {
            let store = store.clone();
            thread::spawn(move || {
                let (name, mut chance) = (format!("t{own}"), 12345 + 977 * own);
                for _ in 0..transfers {
                    chance = chance.wrapping_mul(6364136223846793005).wrapping_add(1442695040888963407);
                    let from = (chance >> 33) % accounts;
                    let to = (from + 1 + (chance >> 50) % (accounts - 1)) % accounts;
                    while !transfer(&store, &name, from, to, (chance >> 40) as i64 % 10) {}
                }
            })
        })
        .collect();
    for thread in all {
        thread.join().unwrap();
    }
    store.ask(r#"["begin","all"]"#);
    let sum: i64 = (0..accounts).map(|account| balance(&store, "all", account).unwrap()).sum();
    println!("Rust, {threads} threads: the sum is {sum}");
    assert_eq!(sum, 1000 * accounts as i64);
}

// Transfers between accounts of badger in memory: reads of both balances, writes of both, again
// after a conflict.
//
//	badger THREADS ACCOUNTS < TRANSFERS
//
// A line of TRANSFERS is two numbers of accounts. It prints transfers, tries refused, seconds,
// total.
package main

import (
	"bufio"
	"fmt"
	"os"
	"strconv"
	"sync"
	"sync/atomic"
	"time"

	badger "github.com/dgraph-io/badger"
)

type pair struct{ from, to []byte }

func account(n int) []byte { return []byte(fmt.Sprintf("a%05d", n)) }

func balance(txn *badger.Txn, key []byte) (int, error) {
	item, err := txn.Get(key)
	if err != nil {
		return 0, err
	}
	value, err := item.ValueCopy(nil)
	if err != nil {
		return 0, err
	}
	return strconv.Atoi(string(value))
}

func transfer(db *badger.DB, p pair) error {
	return db.Update(func(txn *badger.Txn) error {
		mine, err := balance(txn, p.from)
		if err != nil {
			return err
		}
		theirs, err := balance(txn, p.to)
		if err != nil || mine < 1 {
			return err
		}
		if err := txn.Set(p.from, []byte(strconv.Itoa(mine-1))); err != nil {
			return err
		}
		return txn.Set(p.to, []byte(strconv.Itoa(theirs+1)))
	})
}

func check(err error) {
	if err != nil {
		fmt.Fprintln(os.Stderr, err)
		os.Exit(1)
	}
}

func main() {
	threads, err := strconv.Atoi(os.Args[1])
	check(err)
	accounts, err := strconv.Atoi(os.Args[2])
	check(err)
	db, err := badger.Open(badger.DefaultOptions("").WithInMemory(true).WithLogger(nil))
	check(err)
	for n := 0; n < accounts; n++ {
		check(db.Update(func(txn *badger.Txn) error { return txn.Set(account(n), []byte("100")) }))
	}
	var all []pair
	in := bufio.NewReader(os.Stdin)
	for {
		var from, to int
		if n, _ := fmt.Fscan(in, &from, &to); n != 2 {
			break
		}
		all = append(all, pair{account(from), account(to)})
	}
	var refused int64
	began := time.Now()
	var workers sync.WaitGroup
	for t := 0; t < threads; t++ {
		workers.Add(1)
		go func(t int) {
			defer workers.Done()
			for i := t; i < len(all); i += threads {
				for {
					err := transfer(db, all[i])
					if err == nil {
						break
					}
					if err != badger.ErrConflict {
						check(err)
					}
					atomic.AddInt64(&refused, 1)
				}
			}
		}(t)
	}
	workers.Wait()
	took := time.Since(began)
	total := 0
	check(db.View(func(txn *badger.Txn) error {
		for n := 0; n < accounts; n++ {
			value, err := balance(txn, account(n))
			if err != nil {
				return err
			}
			total += value
		}
		return nil
	}))
	fmt.Printf("%d %d %.6f %d\n", len(all), refused, took.Seconds(), total)
}

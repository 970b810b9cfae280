package main

import (
	"bytes"
	"fmt"
	"strconv"
	"syscall"

	bolt "go.etcd.io/bbolt"
)

// hold writes a pair of equal values far apart in each transaction: a reader that sees two
// different values has seen a state that never was
func hold(file, seconds string) {
	n, _ := strconv.Atoi(seconds)
	db, err := bolt.Open(file, 0644, nil)
	check(err)
	var ts syscall.Timeval
	syscall.Gettimeofday(&ts)
	end := ts.Sec + int64(n)
	for i := 0; ; i++ {
		syscall.Gettimeofday(&ts)
		if ts.Sec >= end {
			return
		}
		check(db.Update(func(tx *bolt.Tx) error {
			for _, ns := range []string{"aaa", "zzz"} {
				b, err := tx.Bucket([]byte("v1")).CreateBucketIfNotExists([]byte(ns))
				check(err)
				l, err := b.CreateBucketIfNotExists([]byte("labels"))
				check(err)
				check(l.Put([]byte("n"), []byte(strconv.Itoa(i))))
				// rows that come and go, so that pages are freed and used again
				k := []byte(fmt.Sprintf("k%d", i%50))
				if i%2 == 0 {
					check(l.Put(k, bytes.Repeat([]byte{byte(i)}, 3000)))
				} else {
					check(l.Delete([]byte(fmt.Sprintf("k%d", (i*7)%50))))
				}
			}
			return nil
		}))
	}
}

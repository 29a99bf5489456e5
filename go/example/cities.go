// One goroutine sets values on a seat. When it has ended, another one goes on with that seat: it looks a key up, and walks the pairs in order.
package main

import (
	"bwtree"
	"fmt"
	"log"
)

func main() {
	limits, err := bwtree.LimitsForKeys(2, 100)
	if err != nil {
		log.Fatal(err)
	}
	tree, err := bwtree.Open(limits)
	if err != nil {
		log.Fatal(err)
	}
	seat := tree.Seat()
	done := make(chan error)
	go func() {
		for _, pair := range [][2]string{{"Bern", "Switzerland"}, {"Vienna", "Austria"}, {"Paris", "France"}, {"Oslo", "Norway"}} {
			if _, _, err := seat.Upsert([]byte(pair[0]), []byte(pair[1])); err != nil {
				done <- err
				return
			}
		}
		done <- nil
	}()
	if err := <-done; err != nil {
		log.Fatal(err)
	}

	if value, found, err := seat.Get([]byte("Bern")); err == nil && found {
		fmt.Printf("Bern: %s\n", value)
	}
	err = seat.Walk(nil, func(key, value []byte) bool {
		fmt.Printf("%s, %s\n", key, value)
		return true
	})
	seat.Release()
	if err != nil {
		log.Fatal(err)
	}
}

package main

import (
	"errors"
	"fmt"
	"os"
	"sort"
	"strconv"
)

type shape interface{ area() float64 }
type square struct{ side float64 }

func (it square) area() float64 { return it.side * it.side }

func parse(text string) (int, error) {
	if text == "" {
		return 0, errors.New("empty")
	}
	return strconv.Atoi(text)
}

func main() {
	counts := map[int]int{}
	var all []int
	for _, word := range os.Args[1:] {
		number, err := parse(word)
		if err != nil {
			fmt.Fprintln(os.Stderr, err)
			continue
		}
		counts[number%7]++
		all = append(all, number)
	}
	sort.Slice(all, func(a, b int) bool { return all[a] > all[b] })
	var it shape = square{float64(len(all))}
	fmt.Println(counts, all, it.area())
}

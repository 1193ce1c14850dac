package main

import (
	"debug/dwarf"
	"debug/elf"
	"fmt"
	"os"
	"strconv"
)

func main() {
	file, err := elf.Open(os.Args[1])
	if err != nil {
		panic(err)
	}
	data, err := file.DWARF()
	if err != nil {
		panic(err)
	}
	address, _ := strconv.ParseUint(os.Args[2], 0, 64)
	for units := data.Reader(); ; units.SkipChildren() {
		unit, err := units.Next()
		if err != nil || unit == nil {
			break
		}
		lines, err := data.LineReader(unit)
		if err != nil || lines == nil {
			continue
		}
		var entry dwarf.LineEntry
		if lines.SeekPC(address, &entry) == nil {
			fmt.Printf("%s:%d\n", entry.File.Name, entry.Line)
		}
	}
}

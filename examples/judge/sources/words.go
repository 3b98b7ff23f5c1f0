package main

import (
	"fmt"
	"strings"
)

func counted(text string) int {
	return len(strings.Fields(text))
}

func main() {
	fmt.Println(counted("a rose is a rose"))
}

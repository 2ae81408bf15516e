// Sums of numbers, as series.c has them.
package main

type span struct{ first, last int }

func (s span) sum() int {
	total := 0
	for n := s.first; n <= s.last; n++ {
		if n%3 == 0 {
			continue
		}
		total += n
	}
	return total
}

func main() {
	println(span{1, 10}.sum())
}

// Traces itself, while three workers take numbers of one channel and give their sums to another.
package main

import (
	"context"
	"os"
	"runtime/trace"
)

func sum(ctx context.Context, n int) int {
	defer trace.StartRegion(ctx, "sum").End()
	total := 0
	for i := 0; i < n*10000; i++ {
		total += i % 7
	}
	return total
}

func main() {
	trace.Start(os.Stdout)
	defer trace.Stop()
	ctx, task := trace.NewTask(context.Background(), "sums")
	defer task.End()
	numbers, sums := make(chan int), make(chan int)
	for worker := 0; worker < 3; worker++ {
		go func() {
			for n := range numbers {
				sums <- sum(ctx, n)
			}
		}()
	}
	go func() {
		defer close(numbers)
		for n := 1; n <= 12; n++ {
			numbers <- n
		}
	}()
	for n := 1; n <= 12; n++ {
		<-sums
	}
}

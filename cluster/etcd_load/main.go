// etcd_load: puts to an etcd server by etcd's own client, for a comparison: so many clients, each with one put after
// another, on one connection. It prints what `sevunthi bench` prints. Debian's golang-etcd-server-dev has the client.
package main

import (
	"context"
	"flag"
	"fmt"
	"os"
	"sort"
	"strconv"
	"strings"
	"sync"
	"time"

	"go.etcd.io/etcd/clientv3"
)

// processorSeconds is what a process has used so far.
func processorSeconds(process string) float64 {
	text, _ := os.ReadFile("/proc/" + process + "/stat")
	words := strings.Fields(string(text[strings.LastIndex(string(text), ")")+1:]))
	if len(words) < 13 {
		return 0
	}
	user, _ := strconv.ParseFloat(words[11], 64)
	system, _ := strconv.ParseFloat(words[12], 64)
	return (user + system) / 100
}

func main() {
	etcd := flag.String("etcd", "127.0.0.1:2379", "the address of the leader")
	clients := flag.Int("clients", 64, "")
	seconds := flag.Float64("seconds", 5, "")
	most := flag.Int("most", 1<<62, "how many puts at most")
	keys := flag.Int("keys", 10_000, "")
	size := flag.Int("size", 100, "bytes of a value")
	processes := flag.String("processes", "", "whose processor time counts")
	flag.Parse()
	client, err := clientv3.New(clientv3.Config{Endpoints: []string{*etcd}, DialTimeout: 2 * time.Second})
	if err != nil {
		fmt.Fprintln(os.Stderr, err)
		os.Exit(1)
	}
	spent := func() (sum float64) {
		for _, process := range strings.Split(*processes, ",") {
			sum += processorSeconds(process)
		}
		return
	}
	value, latencies, refused := strings.Repeat("v", *size), make([][]int, *clients), make([]int, *clients)
	before, began := spent(), time.Now()
	var all sync.WaitGroup
	for number := 0; number < *clients; number++ {
		all.Add(1)
		go func(number int) {
			defer all.Done()
			for at := number; at < *most && time.Since(began).Seconds() < *seconds; at += *clients {
				asked := time.Now()
				if _, err := client.Put(context.Background(), fmt.Sprintf("%016d", at%*keys), value); err != nil {
					refused[number]++
					continue
				}
				latencies[number] = append(latencies[number], int(time.Since(asked).Microseconds()))
			}
		}(number)
	}
	all.Wait()
	took, used := time.Since(began).Seconds(), spent()-before
	var each []int
	lost := 0
	for number := range latencies {
		each = append(each, latencies[number]...)
		lost += refused[number]
	}
	sort.Ints(each)
	if len(each) == 0 {
		fmt.Fprintln(os.Stderr, "no put was done")
		os.Exit(1)
	}
	fmt.Printf("%d clients: %.0f a second, p50 %d us, p99 %d us, %d done, %d refused, %.1f us of server time each\n", *clients,
		float64(len(each))/took, each[len(each)/2], each[len(each)*99/100], len(each), lost, used*1e6/float64(len(each)))
}

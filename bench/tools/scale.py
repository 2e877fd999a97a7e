# What a request costs with cachetools, for scale: scale.py K FILE, where FILE has requests of four bytes. Prints nanoseconds for each, the least of three rounds.
import array
import sys
import time
from cachetools import LRUCache

k = int(sys.argv[1])
trace = array.array("I", open(sys.argv[2], "rb").read())
least = float("inf")
for _ in range(3):
    cache = LRUCache(k)
    fetches = 0
    began = time.process_time()
    for page in trace:
        try:
            cache[page]
        except KeyError:
            cache[page] = None
            fetches += 1
    least = min(least, (time.process_time() - began) * 1e9 / len(trace))
print(round(least), fetches)

"""Reads what `compare lists` prints and compares each list with Python's ipaddress.summarize_address_range."""
import ipaddress
import sys

compared = 0
for row in sys.stdin:
    low, high, *words = row.split()
    found = ipaddress.summarize_address_range(ipaddress.IPv4Address(int(low)), ipaddress.IPv4Address(int(high)))
    # A 16-bit prefix word of length p is an IPv4 prefix of length 16 + p.
    expected = [f"{int(net.network_address)}/{net.prefixlen - 16}" for net in found]
    if words != expected:
        sys.exit(f"lists.py: {low}..{high}: the library lists {words}, ipaddress {expected}")
    compared += 1
if compared < 20_000:
    sys.exit(f"lists.py: only {compared} lists came")
print(f"{compared} lists agree with ipaddress")

#!/usr/bin/env python3
"""Writes the tutorial's log: one day of a small web shop that there never was, 3,000 requests.

    python3 examples/tutorial/make_log.py >examples/tutorial/access.log

The addresses are those that RFC 5737 keeps for documents. The numbers come from a generator that stands here, so that the
log is the same wherever it is made.
"""
REQUESTS = 3000
ADDRESSES = [f"192.0.2.{host}" for host in range(10, 60)] + [f"198.51.100.{host}" for host in range(1, 30)]
SCANNER = "203.0.113.66"
PAGES = ["/", "/", "/", "/shelf", "/shelf", "/basket", "/about", "/style.css", "/logo.png", "/search?q=lamp", "/search?q=red%20chair"]


class Numbers:
    """A linear congruence: x becomes 1103515245 x + 12345 modulo 2^31; its upper bits are used."""

    def __init__(self, seed):
        self.state = seed

    def below(self, most):
        self.state = (1103515245 * self.state + 12345) % 2**31
        return (self.state >> 8) % most


def request(numbers, second):
    address = ADDRESSES[numbers.below(len(ADDRESSES))]
    page = PAGES[numbers.below(len(PAGES))]
    size = 200 + numbers.below(20000)
    method, status = "GET", 200
    chance = numbers.below(1000)
    if 47000 <= second < 47600 and chance < 300:
        status, size = 500, 87
    elif page == "/basket" and chance < 250:
        method, status, size = "POST", 302, 0
    elif page in ("/style.css", "/logo.png") and chance < 600:
        status, size = 304, "-"
    elif chance > 990:
        page, status, size = f"/item/{numbers.below(90)}", 404, 153
    return address, method, page, status, size


def main():
    numbers = Numbers(20261201)
    second = 0
    for number in range(REQUESTS):
        second += 1 + numbers.below(55)
        address, method, page, status, size = request(numbers, second)
        if number in (1207, 1208, 1209, 1212):
            address, method, page, status, size = SCANNER, "GET", "/wp-login.php", 404, 153
        time = f"{second // 3600:02}:{second // 60 % 60:02}:{second % 60:02}"
        print(f'{address} - - [01/Dec/2026:{time} +0000] "{method} {page} HTTP/1.1" {status} {size}')


if __name__ == "__main__":
    main()

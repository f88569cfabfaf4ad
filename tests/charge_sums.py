#!/usr/bin/env python3
"""The input of `charge_bench`: how many loans, then the least and the greatest allowed sum of their total numbers and of
their supplement numbers, each as two numbers, what is above 0 and what is below.

The loans are those of x = 1, 48271, 48271^2, .. modulo 2^31 - 1: balance 10^8 + x mod 10^8, value balance + x / 8 mod
25 * 10^7, months 1 + x / 64 mod 480, term 1 + x / 8 mod 120, m (40 + x mod 261) hundredths, each with the supplement
(quotients rounded down).
"""
import loan_cases
import stored

COUNT = 1_000


def loans(count):
    """The loans as (p, q, balance, months, term, sup, m), the value being p / q balances and m in 10^17ths."""
    x = 1
    for _ in range(count):
        balance = 10**8 + x % 10**8
        value = balance + x // 8 % (25 * 10**7)
        yield value, balance, balance, 1 + x // 64 % 480, 1 + x // 8 % 120, 1, (40 + x % 261) * 10**15
        x = x * 48271 % (2**31 - 1)


def question(count, ranges):
    """An input of `charge_bench`."""
    return loan_cases.line([count] + [part for x in ranges for part in loan_cases.pair(x)])


def answer(count):
    """Its output where both sums are allowed."""
    return b"%d loans, both sums within\n" % count


def stored_files():
    sums = map(sum, zip(*map(loan_cases.allowed, loans(COUNT))))
    return {"stdin": question(COUNT, sums), "stdout": answer(COUNT)}


if __name__ == "__main__":
    stored.main("charge_bench", __doc__, stored_files)

"""Makes the sums that the run programs print, which change with any number that they are made of and with the order."""

MODULUS = 16_777_213


def sum_of(numbers):
    total = 0
    for number in numbers:
        total = (251 * total + number) % MODULUS
    return total

"""Makes 300,000 payments among 1,000 accounts, more than a round of a block has."""
with open("pays.csv", "w", encoding="ascii") as file:
    for n in range(300_000):
        amount = n * 7919 % 1000
        file.write(f"{n % 1000},{n * 7 % 1000},{n},{amount}\n")

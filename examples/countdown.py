n = 3
total = 0
while n:
    total = total + n
    n = n - 1
print(total)

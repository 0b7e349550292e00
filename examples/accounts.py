# Functions, defaults and exceptions.
def withdraw(accounts, name, amount=10):
    if accounts[name] < amount:
        raise ValueError(f"{name} has only {accounts[name]}")
    accounts[name] -= amount
    return accounts[name]

accounts = {"ann": 15, "bob": 5}
for name in ("ann", "bob", "cid"):
    try:
        print(name, withdraw(accounts, name))
    except ValueError as problem:
        print("no:", problem)
    except KeyError:
        print("no account of", name)
    finally:
        print("asked for", name)

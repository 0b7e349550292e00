import calc

def test_div():
    assert calc.div(6, 3) == 2

if __name__ == "__main__":
    test_div()
    print("ok")

print("".join(f"{line} ok {'up' if line == 17 else 'down'}\n" for line in range(1, 34)), end="")

print("".join(f"{line} ok {'down' if line <= 32 else 'up'}\n" for line in range(1, 32769)), end="")

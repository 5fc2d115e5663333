Print 2 + 3 * 4
Print 2 - 5

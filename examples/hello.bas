Print 6 * 7
Print 2 + 3 * 4
Print 9223372036854775807 + 1

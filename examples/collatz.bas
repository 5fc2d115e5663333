Dim start As Integer = 1
Dim n As Integer
Dim odd As Integer
Dim length As Integer
While start <= 12
  n = start
  length = 0
  While n <> 1
    odd = n Mod 2
    n = odd * (3 * n + 1) + (1 - odd) * (n \ 2)
    length = length + 1
  Wend
  Print length
  start = start + 1
Wend

Dim outer As Integer
Dim inner As Integer
Dim sum As Integer
Dim product As Integer = 1
Dim rest As Integer
Dim part As Integer
While part < 3
  outer = 0
  While outer < 1000
    inner = 0
    While inner < 2997
      sum = sum + inner
      product = product * 3 + 1
      rest = rest + product Mod 7
      inner = inner + 1
    Wend
    outer = outer + 1
  Wend
  Print sum + rest
  part = part + 1
Wend

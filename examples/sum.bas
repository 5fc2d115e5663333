Dim i As Integer = 1
Dim sum As Integer
While i <= 100
  sum = sum + i
  i = i + 1
Wend
Print sum

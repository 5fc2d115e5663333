Dim a As Integer = 7
Dim b As Integer
Print a + b
Print a \ b

Dim n As Integer = 2
Dim d As Integer
Dim prime As Integer
While n < 50
  prime = 1
  d = 2
  While d * d <= n
    If n Mod d = 0 Then
      prime = 0
    End If
    d = d + 1
  Wend
  If prime Then
    Print n
  End If
  n = n + 1
Wend

script skip

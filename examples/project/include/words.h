words: hello, goodbye

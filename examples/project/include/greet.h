greet: a name

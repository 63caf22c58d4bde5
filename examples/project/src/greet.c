#include "greet.h"
#include "words.h"
greet: say the word and the name

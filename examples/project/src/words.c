#include "words.h"
words: in a list

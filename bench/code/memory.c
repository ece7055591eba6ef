/* What gcc calls to copy and clear wholes. */
typedef unsigned int word;

void *memcpy(void *into, const void *from, word size) {
    for (word k = 0; k < size; k++) ((char *)into)[k] = ((const char *)from)[k];
    return into;
}

void *memset(void *into, int value, word size) {
    for (word k = 0; k < size; k++) ((char *)into)[k] = (char)value;
    return into;
}

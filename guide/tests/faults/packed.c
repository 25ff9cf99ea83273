/* A word at an odd address, which a compiler reads at once where it takes such reads to be fast. */
struct __attribute__((packed)) entry {
    char kind;
    int value;
};
volatile struct entry entry = {1, 42};

int main(void)
{
    return entry.value;
}

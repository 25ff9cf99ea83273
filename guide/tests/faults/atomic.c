int main(void)
{
    static int count;
    return __atomic_fetch_add(&count, 1, __ATOMIC_SEQ_CST);
}

volatile float half = 0.5f;
int main(void)
{
    return (int)(half + half);
}

/* A unit of its own for the section of mixed versions. */
int spare(int value)
{
    return value < 0 ? -value : value;
}

//! uses main's parameters
//! fault undefined clause=6.5p2 reason=unsequenced line=6
int main(int count,
         char **words)
{
  return count++ + count;
}

# a fix of the drive
{
  chainage = 1284.5;  /* from the shaft */
  roll = -0.25;
  target.x = 3;
  target.y = 1.5;
}

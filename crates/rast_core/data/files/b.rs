trait A = B;

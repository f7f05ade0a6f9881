/* a pair */ pair.0.1 >>= x; // and more
rest
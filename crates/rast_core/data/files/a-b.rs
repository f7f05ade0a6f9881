// Before a.rs in the order of paths.
trait A = B;

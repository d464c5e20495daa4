"""What bounds are made of, and what lies behind one that is `overload`, in numbers and in sentences.
The bounds themselves are the proved program's."""

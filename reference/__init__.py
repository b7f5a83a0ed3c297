"""The lashing check in fractions: the second source that the proved program is compared with."""

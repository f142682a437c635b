// The original's tests of this module are not supplied; this file lets its declaration compile.

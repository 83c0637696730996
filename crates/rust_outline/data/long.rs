fn a() { 'ab' }

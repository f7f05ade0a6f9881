const C: char = 'ab';

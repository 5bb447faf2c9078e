function sum(a, b) {
  total = a + b;
  list.push(total);
}

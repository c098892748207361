console.log('hello', 7);
console.log(true, null, 9007199254740991);

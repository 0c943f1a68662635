console.log(arguments.length, this === module.exports, typeof require.main, require.main === module, __filename.slice(-6), typeof exports, Object.keys(module).join());

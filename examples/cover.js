function size(big) {
    return big ? 2 : 1;
}
function unused() { }
print(size(1));

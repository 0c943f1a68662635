
    Map = WeakMap = Proxy = Uint8Array = Reflect = JSON = null; TypeError = RangeError = Error = String = null; Object = null;
    function F() { } print(new F() + "", typeof new F);

// A small part of what a browser gives a script: window, document, elements without layout, events, and timers as a
// queue that runs after the script, in the order of their times. `jl` calls `afterScript` when the script has ended.

var window = this, self = this;
var navigator = { userAgent: "jlint", language: "en", platform: "jlint", onLine: false };
var location = { href: "about:blank", protocol: "about:", host: "", pathname: "blank", search: "", hash: "" };

var EventTarget = function () { this.listeners = {}; };
EventTarget.prototype.addEventListener = function (type, listener) {
  if (!Object.prototype.hasOwnProperty.call(this.listeners, type)) {
    this.listeners[type] = [];
  }
  this.listeners[type].push(listener);
};
EventTarget.prototype.removeEventListener = function (type, listener) {
  var list = Object.prototype.hasOwnProperty.call(this.listeners, type) ? this.listeners[type] : [];
  var at = list.indexOf(listener);
  if (at >= 0) {
    list.splice(at, 1);
  }
};
EventTarget.prototype.dispatchEvent = function (event) {
  var target = this, handler = this["on" + event.type];
  event.target = target;
  if (typeof handler === "function") {
    handler.call(target, event);
  }
  if (Object.prototype.hasOwnProperty.call(this.listeners, event.type)) {
    this.listeners[event.type].slice().forEach(function (listener) { listener.call(target, event); });
  }
  return !event.defaultPrevented;
};

var Event = function (type) {
  this.type = String(type);
  this.target = null;
  this.defaultPrevented = false;
};
Event.prototype.preventDefault = function () {
  Object.defineProperty(this, "defaultPrevented", { value: true });
};
Event.prototype.stopPropagation = function () { };

var Element = function (tag) {
  EventTarget.call(this);
  this.tagName = String(tag).toUpperCase();
  this.nodeName = this.tagName;
  this.nodeType = 1;
  this.id = "";
  this.className = "";
  this.textContent = "";
  this.innerHTML = "";
  this.value = "";
  this.style = {};
  this.attributes = {};
  this.childNodes = [];
  this.parentNode = null;
};
Element.prototype = Object.create(EventTarget.prototype);
Element.prototype.constructor = Element;
Element.prototype.setAttribute = function (name, value) {
  this.attributes[name] = String(value);
  if (name === "id") {
    this.id = String(value);
  }
};
Element.prototype.getAttribute = function (name) {
  return Object.prototype.hasOwnProperty.call(this.attributes, name) ? this.attributes[name] : null;
};
Element.prototype.removeChild = function (child) {
  var at = this.childNodes.indexOf(child);
  if (at >= 0) {
    this.childNodes.splice(at, 1);
    child.parentNode = null;
  }
  return child;
};
Element.prototype.appendChild = function (child) {
  if (child.parentNode) {
    child.parentNode.removeChild(child);
  }
  this.childNodes.push(child);
  child.parentNode = this;
  return child;
};
Element.prototype.descendants = function (isWanted) {
  var found = [];
  this.childNodes.forEach(function (child) {
    if (isWanted(child)) {
      found.push(child);
    }
    found = found.concat(child.descendants(isWanted));
  });
  return found;
};
Element.prototype.getElementsByTagName = function (tag) {
  var wanted = String(tag).toUpperCase();
  return this.descendants(function (element) { return wanted === "*" || element.tagName === wanted; });
};
Element.prototype.click = function () { this.dispatchEvent(new Event("click")); };
Element.prototype.focus = function () { };
Element.prototype.blur = function () { };

var document = new Element("#document");
Object.defineProperty(document, "nodeType", { value: 9 });
document.readyState = "loading";
document.documentElement = document.appendChild(new Element("html"));
document.head = document.documentElement.appendChild(new Element("head"));
document.body = document.documentElement.appendChild(new Element("body"));
document.createElement = function (tag) { return new Element(tag); };
document.createTextNode = function (text) {
  var node = new Element("#text");
  node.textContent = String(text);
  return node;
};
document.getElementById = function (id) {
  var found = this.descendants(function (element) { return element.id === id; });
  return found.length > 0 ? found[0] : null;
};

var windowEvents = new EventTarget();
var addEventListener = function (type, listener) { windowEvents.addEventListener(type, listener); };
var removeEventListener = function (type, listener) { windowEvents.removeEventListener(type, listener); };
var dispatchEvent = function (event) { return windowEvents.dispatchEvent(event); };

var timers = (function () {
  // The most runs of an interval, so that the queue ends.
  var mostRuns = 100, waiting = [], made = 0, now = 0;

  function add(callback, delay, given, isRepeated) {
    var number = Number(delay);
    made += 1;
    waiting.push({
      id: made,
      at: now + (number > 0 ? number : 0),
      callback: callback,
      delay: number > 0 ? number : 0,
      given: given,
      runs: isRepeated ? mostRuns : 1
    });
    return made;
  }

  function remove(id) {
    waiting = waiting.filter(function (timer) { return timer.id !== id; });
  }

  function first() {
    return waiting.reduce(function (best, timer) { return timer.at < best.at ? timer : best; }, waiting[0]);
  }

  function run() {
    var timer;
    while (waiting.length > 0) {
      timer = first();
      now = timer.at;
      timer.runs -= 1;
      waiting.splice(waiting.indexOf(timer), 1);
      if (timer.runs > 0) {
        timer.at = now + (timer.delay > 0 ? timer.delay : 1);
        waiting.push(timer);
      }
      timer.callback.apply(undefined, timer.given);
    }
  }

  return { add: add, remove: remove, run: run };
})();

var setTimeout = function (callback, delay) {
  return timers.add(callback, delay, Array.prototype.slice.call(arguments, 2), false);
};
var setInterval = function (callback, delay) {
  return timers.add(callback, delay, Array.prototype.slice.call(arguments, 2), true);
};
var clearTimeout = function (id) { timers.remove(id); };
var clearInterval = clearTimeout;
var requestAnimationFrame = function (callback) { return timers.add(callback, 16, [0], false); };
var cancelAnimationFrame = clearTimeout;
var alert = function (text) { print(text); };

function afterScript() {
  document.readyState = "complete";
  document.dispatchEvent(new Event("DOMContentLoaded"));
  windowEvents.dispatchEvent(new Event("load"));
  if (typeof window.onload === "function") {
    window.onload.call(window, new Event("load"));
  }
  timers.run();
}

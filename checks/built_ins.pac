// Calls each built-in function, with values of ECMA-262 5.1 and of docs/LANGUAGE.md. What it answers is DIRECT, or the
// names of what came out otherwise. Of the names a.example alone has addresses, 10.1.2.3 and 2001:db8::1.
var wrong = "";

function same(name, found, expected) {
  if (found !== expected) wrong += name + " ";
}

function objects() {
  same("Object", typeof Object({}), "object");
  same("new Object", typeof new Object(), "object");
  same("Object.keys", Object.keys({x: 1, 2: 3}).join("-"), "2-x");
  same("toString", ({}).toString() + [].toString(), "[object Object]");
  same("valueOf", ({x: 1}).valueOf().x, 1);
  same("hasOwnProperty", ({x: 1}).hasOwnProperty("x"), true);
  same("Boolean", Boolean(1).toString() + false.valueOf(), "truefalse");
  same("Number", Number("7") + (5).valueOf(), 12);
  same("Number.toString", (255).toString(16), "ff");
  same("isNaN", isNaN("x"), true);
  same("parseInt", parseInt("12px") + parseInt("ff", 16), 267);
  same("Math", [Math.abs(-1), Math.max(1, 3), Math.min(1, 3), Math.floor(2), Math.ceil(2), Math.round(2)].join(""), "131222");
}

function arrays() {
  var list = Array(1, 2);
  same("new Array", new Array(3).length, 3);
  same("isArray", Array.isArray(list), true);
  same("push", list.push(3, 4), 4);
  same("pop", list.pop(), 4);
  same("shift", list.shift(), 1);
  same("unshift", list.unshift(0, 1), 4);
  same("concat", list.concat([5, 6], 7).join(""), "0123567");
  same("slice", list.slice(1, -1).toString(), "1,2");
  same("splice", list.splice(1, 2, "a", "b", "c").join() + list.join(), "1,20,a,b,c,3");
  same("reverse", list.reverse().join(""), "3cba0");
  same("indexOf", list.indexOf("c") + [1, 2, 1].lastIndexOf(1), 3);
}

function texts() {
  same("String", String(1) + String.fromCharCode(65, 66), "1AB");
  same("charAt", "abc".charAt(1), "b");
  same("charCodeAt", "abc".charCodeAt(1), 98);
  same("substring", "abcd".substring(3, 1) + "abcd".substr(1, 2) + "abcd".slice(-1), "bcbcd");
  same("text concat", "a".concat("b", 1), "ab1");
  same("cases", " Ab ".trim().toLowerCase() + "c".toUpperCase(), "abC");
  same("text indexOf", "abcb".indexOf("b") + "abcb".lastIndexOf("b"), 4);
  same("split", "a,b,c".split(",").length, 3);
  same("replace", "abc".replace("b", "[$&$`$'$$]"), "a[bac$]c");
  same("text toString", "a".toString() + "b".valueOf(), "ab");
}

function errors() {
  same("Error", new Error("m").toString() + String(TypeError("t")), "Error: mTypeError: t");
  same("other errors", new RangeError("r").name + ReferenceError("x").message, "RangeErrorx");
  try {
    null.x;
  } catch (e) {
    same("not an object", e.toString(), "TypeError: not an object");
  }
  try {
    nothing();
  } catch (e) {
    same("not defined", e.message, "nothing is not defined");
  } finally {
    same("finally", typeof nothing, "undefined");
  }
}

function language() {
  var all = "", name;
  for (name in {b: 1, a: 2, 1: 3}) all += name;
  same("for in", all, "1ba");
  function Point(x) {
    this.x = x;
    this.count = arguments.length;
  }
  Point.prototype.twice = function () { return this.x * 2; };
  var point = new Point(4, 5);
  same("new", point.twice() + point.count, 10);
  same("instanceof", point instanceof Point && "x" in point && delete point.x && !("x" in point), true);
  switch (point.count) {
    case 1: all = "one"; break;
    case 2: all = "two";
    default: all += "!";
  }
  same("switch", all, "two!");
}

function proxies(url, host) {
  same("isPlainHostName", isPlainHostName("a"), true);
  same("dnsDomainIs", dnsDomainIs(host, ".example.com"), true);
  same("localHostOrDomainIs", localHostOrDomainIs("www", host), true);
  same("dnsDomainLevels", dnsDomainLevels(host), 2);
  same("dnsResolve", dnsResolve("a.example"), "10.1.2.3");
  same("isResolvable", isResolvable("b.example"), false);
  same("isInNet", isInNet("a.example", "10.0.0.0", "255.0.0.0"), true);
  same("myIpAddress", myIpAddress(), "127.0.0.1");
  same("shExpMatch", shExpMatch(url, "*://w?w.*"), true);
  same("weekdayRange", weekdayRange("MON", "WED"), true);
  same("dateRange", dateRange(14, "NOV", 2023, "GMT"), true);
  same("timeRange", timeRange(22, 13, 22, 14), true);
  same("alert", alert("told"), undefined);
  same("dnsResolveEx", dnsResolveEx("a.example"), "2001:db8::1;10.1.2.3");
  same("an address", dnsResolveEx("2001:DB8:0:0::10.0.0.01"), "2001:db8::a00:1");
  same("no address", dnsResolveEx("b.example") + dnsResolveEx("10.0.0.256") + dnsResolveEx(null), "");
  same("isResolvableEx", isResolvableEx("a.example") && !isResolvableEx("b.example"), true);
  same("isInNetEx", isInNetEx("10.1.2.3", "10.0.0.0/8") && isInNetEx("2001:db8::5", "2001:db8::/32"), true);
  same("another family", isInNetEx("10.1.2.3", "2001:db8::/32") || isInNetEx("a.example", "10.0.0.0/8"), false);
}

function patterns(host) {
  var p = /(b)(x)?/g, lines = /^b$/m, found = p.exec("abcb");
  same("exec", found.join("-") + found.index + found.input + p.lastIndex, "b-b-1abcb2");
  same("test", p.test("abcb") + "" + p.lastIndex + p.test("abcb") + p.lastIndex, "true4false0");
  same("a pattern as a text", lines + p.source + typeof p, "/^b$/m(b)(x)?object");
  same("match", "abAB".match(/b/gi).join() + "ab".match(/(c)|b/).length + "ab".match(/c/), "b,B2null");
  same("search", "abcb".search(/c/) + "a".search(lines), 1);
  same("replace by a pattern", "a-b-c".replace(/-([bc])/g, "[$1$&$`$']"), "a[b-ba-c][c-ca-b]");
  same("split by a pattern", "a1b22c".split(/([0-9])+/).join() + "ab".split(/(?:)/).length, "a,1,b,2,c2");
  same("a host", /^www\.(.*)$/i.exec(host)[1], host.substring(4));
}

function FindProxyForURL(url, host) {
  objects();
  arrays();
  texts();
  patterns(host);
  errors();
  language();
  proxies(url, host);
  return wrong || "DIRECT";
}

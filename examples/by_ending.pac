// Proxies by the end of the host.
var rules = [
  {end: ".example.com", proxies: "DIRECT"},
  {end: ".example.org", proxies: "PROXY proxy.example.com:8080; DIRECT"}
];

function endsWith(text, end) {
  var at = text.length - end.length;
  for (var i = 0; i < end.length; i++)
    if (text[at + i] !== end[i])
      return false;
  return true;
}

function FindProxyForURL(url, host) {
  for (var i = 0; i < rules.length; i++)
    if (endsWith(host, rules[i].end))
      return rules[i].proxies;
  return "PROXY proxy.example.com:3128";
}

// The data of the page: `about` as JSON, and the parts, which are columns of numbers in compressed bytes.

const about = JSON.parse($('about').textContent);

function bytesOf(base64) {
  if (Uint8Array.fromBase64) return Uint8Array.fromBase64(base64);
  const text = atob(base64), bytes = new Uint8Array(text.length);
  for (let i = 0; i < bytes.length; i++) bytes[i] = text.charCodeAt(i);
  return bytes;
}

// A function that answers a part as an array of a kind of number.
async function unpack() {
  const stream = new Blob([bytesOf($('data').textContent.trim())]).stream();
  const buffer = await new Response(stream.pipeThrough(new DecompressionStream('deflate'))).arrayBuffer();
  $('data').remove();
  return (name, Kind) => {
    const [place, size] = about.parts[name];
    return new Kind(buffer, place, size / Kind.BYTES_PER_ELEMENT);
  };
}

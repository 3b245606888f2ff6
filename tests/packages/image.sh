# shellcheck shell=bash disable=SC2154
# The image: its layout, what the Dockerfile makes, and the program in it. tests/packages/packages.sh reads it.

# the image
the_same "the image, the same twice" release/image "$parts"
if can "the image" tar gzip python3; then
    mkdir "$work/oci" "$work/root"
    tar -C "$work/oci" -xf "$made/toxicap-$version-oci.tar"
    verdict "the image's layout" "$(python3 -B tests/packages/layout.py "$work/oci" "$work/root" 2>&1)"
    verdict "the image below 3 MB" "$(size_of=$(du -sb "$work/root" | cut -f 1); [ "$size_of" -lt 3000000 ] || echo "  $size_of bytes")"
    if can "the image, read by skopeo" skopeo; then
        skopeo inspect "oci-archive:$made/toxicap-$version-oci.tar" > "$work/told" 2>&1 || true
        verdict "the image, read by skopeo" "$(grep -q '"Os": "linux"' "$work/told" || cat "$work/told")"
    fi
    # the lines of the Dockerfile, done by hand: the layer has the same files
    unpacked "toxicap-$version-image.tar.gz"
    mkdir -p "$work/built"/{usr/bin,usr/share/toxicap,usr/share/doc/toxicap,work}
    (
        cd "$away/toxicap-$version-image"
        cp toxicap "$work/built/usr/bin"
        cp -r share/. "$work/built/usr/share/toxicap"
        cp LICENCES.md LGPL-2.1 toxicap.o "$work/built/usr/share/doc/toxicap"
    )
    verdict "the image's root is what the Dockerfile says" "$(
        folder_difference "$work/built" "$work/root"
        sed '/^#/d' "$away/toxicap-$version-image/Dockerfile" > "$work/output"
        printf '%s\n' 'FROM scratch' 'COPY toxicap /usr/bin/' 'COPY share /usr/share/toxicap/' \
            'COPY LICENCES.md LGPL-2.1 toxicap.o /usr/share/doc/toxicap/' 'WORKDIR /work' 'ENTRYPOINT ["/usr/bin/toxicap"]' > "$work/expected"
        difference "$work/expected" "$work/output"
    )"
    # and by buildah, whose images lie in a folder that is thrown away
    images=(buildah --storage-driver vfs --root "$work/images" --runroot "$work/run")
    if ! can "the Dockerfile, built" buildah; then :
    elif ! "${images[@]}" from scratch > "$work/told" 2>&1; then skip "the Dockerfile, built" "buildah has no place for images"
    else
        verdict "the Dockerfile, built" "$(
            quiet timeout 60 "${images[@]}" build --isolation chroot -q -t toxicap "$away/toxicap-$version-image" > "$work/told"
            container=$("${images[@]}" from --pull-never toxicap 2>&1) || cat "$work/told"
            folder_difference "$work/root" "$("${images[@]}" mount "$container" 2>&1)"
        )"
    fi
    if [ "$(id -u)" = 0 ]; then
        mkdir "$work/root/work/out"
        verdict "the image, run" "$(
            share=usr/share/toxicap
            quiet chroot "$work/root" /usr/bin/toxicap --capture $share/samples/shop.pcap --scenario $share/examples/bandwidth.json \
                --scenario $share/examples/latency.json --out work/out
            folder_difference "$work/expected-files" "$work/root/work/out"
        )"
    else
        skip "the image, run" "it wants root"
    fi
fi
